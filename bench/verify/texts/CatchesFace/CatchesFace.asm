class 52 public+super CatchesFace java/lang/Object
method static tries ()V
limits 1 0
L0:
iconst_0
pop
L1:
return
L2:
athrow
catch L0 L1 L2 java/lang/Comparable
frame L2 locals - stack object:java/lang/Comparable
end
method public+static main ([Ljava/lang/String;)V
limits 0 1
return
end
