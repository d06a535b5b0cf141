class 52 public+super OpaqueDown java/lang/Object
method static down (Ljava/lang/String;)LMissing;
limits 1 1
aload_0
areturn
end
method public+static main ([Ljava/lang/String;)V
limits 0 1
return
end
