class 52 public+super ProtectedNew away/Base
method public <init> ()V
limits 1 1
aload_0
invokespecial away/Base <init> ()V
return
end
method static make ()V
limits 2 0
new away/Base
dup
invokespecial away/Base <init> ()V
pop
return
end
method public+static main ([Ljava/lang/String;)V
limits 0 1
return
end
