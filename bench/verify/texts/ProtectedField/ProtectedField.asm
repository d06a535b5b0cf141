class 52 public+super ProtectedField away/Base
method public <init> ()V
limits 1 1
aload_0
invokespecial away/Base <init> ()V
return
end
method static get (Laway/Base;)I
limits 1 1
aload_0
getfield away/Base count I
ireturn
end
method public+static main ([Ljava/lang/String;)V
limits 0 1
return
end
