class 52 public+super ThisPut java/lang/Object
field 0 own I
method public <init> ()V
limits 1 1
aload_0
invokespecial java/lang/Object <init> ()V
return
end
method static make ()V
limits 2 1
L1:
return
L0:
aload_0
iconst_0
putfield ThisPut own I
goto L0
frame L0 locals this stack -
end
method public+static main ([Ljava/lang/String;)V
limits 0 1
return
end
