class 52 public+super SpecialDirect java/lang/Object
implements Face
method public <init> ()V
limits 1 1
aload_0
invokespecial java/lang/Object <init> ()V
return
end
method public call ()V
limits 1 1
aload_0
invokespecial interface Face own ()V
return
end
method public+static main ([Ljava/lang/String;)V
limits 0 1
return
end
