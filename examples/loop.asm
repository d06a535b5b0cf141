class 52 public+super Loop java/lang/Object
method public+static main ([Ljava/lang/String;)V
limits 3 3
iconst_0
istore_1
iconst_1
istore_2
L0:
iload_1
iload_2
iadd
istore_1
iinc 2 1
iload_2
bipush 11
if_icmplt L0
getstatic java/lang/System out Ljava/io/PrintStream;
iload_1
invokevirtual java/io/PrintStream println (I)V
L1:
aconst_null
athrow
L2:
pop
getstatic java/lang/System out Ljava/io/PrintStream;
ldc text "done"
invokevirtual java/io/PrintStream println (Ljava/lang/String;)V
return
catch L1 L2 L2 java/lang/NullPointerException
frame L0 locals object:[Ljava/lang/String;,int,int stack -
frame L2 locals object:[Ljava/lang/String;,int,int stack object:java/lang/NullPointerException
end
