class 52 public+super ThisCompared java/lang/Object
method public <init> ()V
limits 1 1
aload_0
ifnull L0
L0:
aload_0
invokespecial java/lang/Object <init> ()V
return
frame L0 locals this stack -
end
method public+static main ([Ljava/lang/String;)V
limits 0 1
return
end
