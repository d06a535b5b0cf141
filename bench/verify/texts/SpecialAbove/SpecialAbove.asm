class 52 public+super SpecialAbove java/lang/Object
implements Face
method public <init> ()V
limits 1 1
aload_0
invokespecial java/lang/Object <init> ()V
return
end
method public call ()V
limits 1 1
aload_0
invokespecial interface Upper own ()V
return
end
method public+static main ([Ljava/lang/String;)V
limits 0 1
return
end
