class 52 public+super LongAsTopOver java/lang/Object
method static keeps ()V
limits 2 0
lconst_0
goto L0
L0:
iconst_0
pop
return
frame L0 locals - stack top
end
method public+static main ([Ljava/lang/String;)V
limits 0 1
return
end
