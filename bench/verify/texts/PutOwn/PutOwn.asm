class 52 public+super PutOwn java/lang/Object
field 0 own I
method public <init> ()V
limits 2 1
aload_0
iconst_1
putfield PutOwn own I
aload_0
invokespecial java/lang/Object <init> ()V
return
end
method public+static main ([Ljava/lang/String;)V
limits 0 1
return
end
