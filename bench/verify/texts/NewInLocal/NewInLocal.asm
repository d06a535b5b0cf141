class 52 public+super NewInLocal java/lang/Object
method public <init> ()V
limits 1 1
aload_0
invokespecial java/lang/Object <init> ()V
return
end
method static make ()V
limits 2 1
aconst_null
astore_0
goto L1
L0:
new NewInLocal
pop
aload_0
pop
return
L1:
return
frame L0 locals new:L0 stack -
frame L1 locals - stack -
end
method public+static main ([Ljava/lang/String;)V
limits 0 1
return
end
