class 52 public+super LongSplit java/lang/Object
method static splits ()V
limits 4 0
lconst_0
iconst_0
dup_x1
pop2
pop
return
end
method public+static main ([Ljava/lang/String;)V
limits 0 1
return
end
