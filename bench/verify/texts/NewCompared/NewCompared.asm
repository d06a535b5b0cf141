class 52 public+super NewCompared java/lang/Object
method public <init> ()V
limits 1 1
aload_0
invokespecial java/lang/Object <init> ()V
return
end
method static make ()V
limits 3 0
L0:
new NewCompared
dup
dup
if_acmpeq L1
L1:
ifnull L2
L2:
return
frame L1 locals - stack new:L0
frame L2 locals - stack -
end
method public+static main ([Ljava/lang/String;)V
limits 0 1
return
end
