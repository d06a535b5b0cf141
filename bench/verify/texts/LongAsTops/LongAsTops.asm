class 52 public+super LongAsTops java/lang/Object
method static keeps ()V
limits 2 0
lconst_0
goto L0
L0:
return
frame L0 locals - stack top,top
end
method public+static main ([Ljava/lang/String;)V
limits 0 1
return
end
