class 52 public+super Jumps java/lang/Object
method public+static i (I)V
limits 2 1
getstatic java/lang/System out Ljava/io/PrintStream;
iload_0
invokevirtual java/io/PrintStream println (I)V
return
end
method public+static sum (I)I
limits 3 1
iconst_0
L0:
iload_0
iadd
wide iinc 0 -1
iload_0
ifgt L0
ireturn
frame L0 locals int stack int
end
method public+static far (I)I
limits 2 3
goto_w L2
L1:
wide iload 1
ireturn
L2:
wide iload 0
wide istore 1
wide iinc 1 1000
lconst_1
pop2
goto_w L1
frame L1 locals int,int stack -
frame L2 locals int stack -
end
method public+static wides (IJLjava/lang/String;)V
limits 4 300
wide lload 1
wide lstore 298
wide aload 3
wide astore 297
wide iload 0
wide istore 296
wide iinc 296 -300
getstatic java/lang/System out Ljava/io/PrintStream;
dup
dup
wide aload 297
invokevirtual java/io/PrintStream println (Ljava/lang/String;)V
wide iload 296
invokevirtual java/io/PrintStream println (I)V
wide lload 298
invokevirtual java/io/PrintStream println (J)V
return
end
method public+static back (I)I
limits 3 2
iload_0
istore_1
L0:
iload_1
bipush 10
if_icmpge L1
iload_1
iconst_3
imul
istore_1
goto L0
L1:
iload_1
lookupswitch L4 10 L2 27 L3
L2:
iconst_2
ireturn
L3:
iconst_3
ireturn
L4:
iload_1
tableswitch 11 L6 L5 L6
L5:
iconst_5
ireturn
L6:
bipush 6
ireturn
frame L0 locals int,int stack -
frame L1 locals int,int stack -
frame L2 locals int,int stack -
frame L3 locals int,int stack -
frame L4 locals int,int stack -
frame L5 locals int,int stack -
frame L6 locals int,int stack -
end
method public+static caught (Ljava/lang/Object;)I
limits 5 1
L0:
bipush 9
aload_0
iconst_1
iconst_2
pop2
checkcast java/lang/String
pop
ireturn
L1:
pop
bipush 8
ireturn
L2:
invokevirtual java/lang/Object hashCode ()I
pop
bipush 7
ireturn
catch L0 L1 L1 java/lang/NullPointerException
catch L0 L1 L2 any
frame L1 locals object:java/lang/Object stack object:java/lang/NullPointerException
frame L2 locals object:java/lang/Object stack object:java/lang/Throwable
end
method public+static longs (JJ)J
limits 4 4
lload_2
lstore_0
ldc2_w long 3
lstore_2
lload_0
lload_2
lmul
lreturn
end
method public+static main ([Ljava/lang/String;)V
limits 5 1
getstatic java/lang/System out Ljava/io/PrintStream;
ldc2_w long 10
ldc2_w long 20
invokestatic Jumps longs (JJ)J
invokevirtual java/io/PrintStream println (J)V
bipush 10
invokestatic Jumps sum (I)I
invokestatic Jumps i (I)V
iconst_5
invokestatic Jumps far (I)I
invokestatic Jumps i (I)V
bipush 42
ldc2_w long -9000000000
ldc text "seen"
invokestatic Jumps wides (IJLjava/lang/String;)V
iconst_1
invokestatic Jumps back (I)I
invokestatic Jumps i (I)V
bipush 10
invokestatic Jumps back (I)I
invokestatic Jumps i (I)V
bipush 11
invokestatic Jumps back (I)I
invokestatic Jumps i (I)V
iconst_4
invokestatic Jumps back (I)I
invokestatic Jumps i (I)V
bipush 100
invokestatic Jumps back (I)I
invokestatic Jumps i (I)V
aload_0
invokestatic Jumps caught (Ljava/lang/Object;)I
invokestatic Jumps i (I)V
ldc text "s"
invokestatic Jumps caught (Ljava/lang/Object;)I
invokestatic Jumps i (I)V
aconst_null
invokestatic Jumps caught (Ljava/lang/Object;)I
invokestatic Jumps i (I)V
return
end
