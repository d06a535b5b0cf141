class 52 public+super NewOnStack java/lang/Object
method public <init> ()V
limits 1 1
aload_0
invokespecial java/lang/Object <init> ()V
return
end
method static make ()V
limits 2 0
goto L1
L0:
new NewOnStack
pop
goto L0
L1:
return
frame L0 locals - stack new:L0
frame L1 locals - stack -
end
method public+static main ([Ljava/lang/String;)V
limits 0 1
return
end
