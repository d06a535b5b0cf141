class 52 public+super TopKept java/lang/Object
method static keeps ()V
limits 3 0
goto L1
L0:
iconst_0
pop
goto L0
L1:
return
frame L0 locals - stack top
frame L1 locals - stack -
end
method public+static main ([Ljava/lang/String;)V
limits 0 1
return
end
