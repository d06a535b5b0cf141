class 52 public+super ThisInStatic java/lang/Object
method public <init> ()V
limits 1 1
aload_0
invokespecial java/lang/Object <init> ()V
return
end
method static make ()V
limits 1 1
aconst_null
astore_0
goto L1
L0:
aload_0
invokespecial java/lang/Object <init> ()V
L1:
return
frame L0 locals this stack -
frame L1 locals - stack -
end
method public+static main ([Ljava/lang/String;)V
limits 0 1
return
end
