class 52 public+super ThisReturned java/lang/Object
method public <init> ()V
limits 1 1
aload_0
invokespecial java/lang/Object <init> ()V
return
end
method static make ()V
limits 1 1
aconst_null
astore_0
L1:
return
L0:
return
frame L0 locals this stack -
end
method public+static main ([Ljava/lang/String;)V
limits 0 1
return
end
