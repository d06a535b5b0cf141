class 52 public+super FrameAtStart java/lang/Object
method public <init> ()V
limits 1 1
aload_0
invokespecial java/lang/Object <init> ()V
return
end
method static loops (IJ)V
limits 2 3
L0:
iload_0
iconst_1
isub
istore_0
iload_0
ifne L0
return
frame L0 locals int,long stack -
end
method public+static main ([Ljava/lang/String;)V
limits 0 1
return
end
