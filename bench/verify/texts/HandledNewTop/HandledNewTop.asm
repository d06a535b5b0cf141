class 52 public+super HandledNewTop java/lang/Object
method public <init> ()V
limits 1 1
aload_0
invokespecial java/lang/Object <init> ()V
return
end
method static make ()V
limits 2 1
L0:
new HandledNewTop
astore_0
aload_0
L1:
invokespecial HandledNewTop <init> ()V
L2:
return
L3:
athrow
catch L1 L2 L3 any
frame L3 locals top stack object:java/lang/Throwable
end
method public+static main ([Ljava/lang/String;)V
limits 0 1
return
end
