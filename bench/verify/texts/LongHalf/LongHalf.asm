class 52 public+super LongHalf java/lang/Object
method static keeps ()V
limits 2 3
lconst_0
lstore_1
goto L0
L0:
iconst_0
istore_2
goto L1
L1:
return
frame L0 locals top,long stack -
frame L1 locals top,top,int stack -
end
method public+static main ([Ljava/lang/String;)V
limits 0 1
return
end
