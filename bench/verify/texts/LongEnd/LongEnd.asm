class 52 public+super LongEnd java/lang/Object
method static keeps ()V
limits 2 1
lconst_0
lstore_0
return
end
method public+static main ([Ljava/lang/String;)V
limits 0 1
return
end
