class 52 public+super away/Base java/lang/Object
field protected count I
method protected <init> ()V
limits 1 1
aload_0
invokespecial java/lang/Object <init> ()V
return
end
method protected own ()V
limits 0 1
return
end
