class 52 public+super ProtectedMethod away/Base
method public <init> ()V
limits 1 1
aload_0
invokespecial away/Base <init> ()V
return
end
method static call (Laway/Base;)V
limits 1 1
aload_0
invokevirtual away/Base own ()V
return
end
method public+static main ([Ljava/lang/String;)V
limits 0 1
return
end
