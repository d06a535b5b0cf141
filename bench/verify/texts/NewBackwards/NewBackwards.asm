class 52 public+super NewBackwards java/lang/Object
method public <init> ()V
limits 1 1
aload_0
invokespecial java/lang/Object <init> ()V
return
end
method static make (I)V
limits 2 1
L0:
new NewBackwards
L1:
iinc 0 -1
iload_0
ifgt L1
invokespecial NewBackwards <init> ()V
return
frame L1 locals int stack new:L0
end
method public+static main ([Ljava/lang/String;)V
limits 0 1
return
end
