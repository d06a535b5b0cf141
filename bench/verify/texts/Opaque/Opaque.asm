class 52 public+super Opaque java/lang/Object
method static same (LMissing;)LMissing;
limits 1 1
aload_0
areturn
end
method static up (LMissing;)Ljava/lang/Object;
limits 1 1
aload_0
areturn
end
method static nothing ()LMissing;
limits 1 0
aconst_null
areturn
end
method static face (LMissing;)Ljava/lang/Comparable;
limits 1 1
aload_0
areturn
end
method static array ([LMissing;)[Ljava/lang/Object;
limits 1 1
aload_0
areturn
end
method public+static main ([Ljava/lang/String;)V
limits 0 1
return
end
