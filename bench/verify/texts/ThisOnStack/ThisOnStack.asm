class 52 public+super ThisOnStack java/lang/Object
method public <init> ()V
limits 2 1
aload_0
aconst_null
astore_0
goto L0
L0:
invokespecial java/lang/Object <init> ()V
return
frame L0 locals null stack this
end
method public+static main ([Ljava/lang/String;)V
limits 0 1
return
end
