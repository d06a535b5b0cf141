class 52 public+super OpaqueObject java/lang/Object
method static down (Ljava/lang/Object;)LMissing;
limits 1 1
aload_0
areturn
end
method public+static main ([Ljava/lang/String;)V
limits 0 1
return
end
