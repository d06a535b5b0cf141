class 52 public+super PutInherited PutAbove
method public <init> ()V
limits 2 1
aload_0
iconst_1
putfield PutInherited own I
aload_0
invokespecial PutAbove <init> ()V
return
end
method public+static main ([Ljava/lang/String;)V
limits 0 1
return
end
