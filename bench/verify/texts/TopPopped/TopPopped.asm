class 52 public+super TopPopped java/lang/Object
method static pops ()V
limits 1 0
goto L1
L0:
pop
L1:
return
frame L0 locals - stack top
frame L1 locals - stack -
end
method public+static main ([Ljava/lang/String;)V
limits 0 1
return
end
