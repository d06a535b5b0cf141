class 52 public+super ComparableArray java/lang/Object
method static up ([I)Ljava/lang/Comparable;
limits 1 1
aload_0
areturn
end
method public+static main ([Ljava/lang/String;)V
limits 0 1
return
end
