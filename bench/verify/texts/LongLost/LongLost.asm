class 52 public+super LongLost java/lang/Object
method static loses ()J
limits 2 2
lconst_0
lstore_0
iconst_0
istore_1
lload_0
lreturn
end
method public+static main ([Ljava/lang/String;)V
limits 0 1
return
end
