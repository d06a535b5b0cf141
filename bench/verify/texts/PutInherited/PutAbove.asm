class 52 public+super PutAbove java/lang/Object
field 0 own I
method public <init> ()V
limits 1 1
aload_0
invokespecial java/lang/Object <init> ()V
return
end
