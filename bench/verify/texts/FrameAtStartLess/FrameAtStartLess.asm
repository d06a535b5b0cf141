class 52 public+super FrameAtStartLess java/lang/Object
method public <init> ()V
limits 1 1
aload_0
invokespecial java/lang/Object <init> ()V
return
end
method static loops (IJ)V
limits 2 3
L0:
iconst_1
istore_0
goto L0
frame L0 locals - stack -
end
method public+static main ([Ljava/lang/String;)V
limits 0 1
return
end
