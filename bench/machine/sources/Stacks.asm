class 52 public+super Stacks java/lang/Object
method public+static i (I)V
limits 2 1
getstatic java/lang/System out Ljava/io/PrintStream;
iload_0
invokevirtual java/io/PrintStream println (I)V
return
end
method public+static l (J)V
limits 3 2
getstatic java/lang/System out Ljava/io/PrintStream;
lload_0
invokevirtual java/io/PrintStream println (J)V
return
end
method public+static main ([Ljava/lang/String;)V
limits 12 1
nop
iconst_1
iconst_2
swap
invokestatic Stacks i (I)V
invokestatic Stacks i (I)V
iconst_3
dup
iadd
invokestatic Stacks i (I)V
iconst_1
iconst_2
dup_x1
invokestatic Stacks i (I)V
invokestatic Stacks i (I)V
invokestatic Stacks i (I)V
iconst_1
iconst_2
iconst_3
dup_x2
invokestatic Stacks i (I)V
invokestatic Stacks i (I)V
invokestatic Stacks i (I)V
invokestatic Stacks i (I)V
ldc2_w long 5000000000
iconst_4
dup_x2
invokestatic Stacks i (I)V
invokestatic Stacks l (J)V
invokestatic Stacks i (I)V
iconst_1
iconst_2
dup2
invokestatic Stacks i (I)V
invokestatic Stacks i (I)V
invokestatic Stacks i (I)V
invokestatic Stacks i (I)V
ldc2_w long -7
dup2
ladd
invokestatic Stacks l (J)V
iconst_1
iconst_2
iconst_3
dup2_x1
invokestatic Stacks i (I)V
invokestatic Stacks i (I)V
invokestatic Stacks i (I)V
invokestatic Stacks i (I)V
invokestatic Stacks i (I)V
iconst_5
ldc2_w long 77
dup2_x1
invokestatic Stacks l (J)V
invokestatic Stacks i (I)V
invokestatic Stacks l (J)V
iconst_1
iconst_2
iconst_3
iconst_4
dup2_x2
invokestatic Stacks i (I)V
invokestatic Stacks i (I)V
invokestatic Stacks i (I)V
invokestatic Stacks i (I)V
invokestatic Stacks i (I)V
invokestatic Stacks i (I)V
iconst_1
iconst_2
ldc2_w long 99
dup2_x2
invokestatic Stacks l (J)V
invokestatic Stacks i (I)V
invokestatic Stacks i (I)V
invokestatic Stacks l (J)V
ldc2_w long 11
iconst_1
iconst_2
dup2_x2
invokestatic Stacks i (I)V
invokestatic Stacks i (I)V
invokestatic Stacks l (J)V
invokestatic Stacks i (I)V
invokestatic Stacks i (I)V
ldc2_w long 12
ldc2_w long 13
dup2_x2
invokestatic Stacks l (J)V
invokestatic Stacks l (J)V
invokestatic Stacks l (J)V
iconst_1
iconst_2
iconst_3
pop
pop2
ldc2_w long 14
pop2
iconst_m1
invokestatic Stacks i (I)V
ldc int 100000
invokestatic Stacks i (I)V
ldc_w int -100000
invokestatic Stacks i (I)V
getstatic java/lang/System out Ljava/io/PrintStream;
ldc_w text "wide text"
invokevirtual java/io/PrintStream println (Ljava/lang/String;)V
getstatic java/lang/System out Ljava/io/PrintStream;
ldc_w class Stacks
invokevirtual java/lang/Class getName ()Ljava/lang/String;
invokevirtual java/io/PrintStream println (Ljava/lang/String;)V
return
end
