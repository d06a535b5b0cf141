class 52 public+super OpaqueUp java/lang/Object
method static up (LMissing;)Ljava/lang/String;
limits 1 1
aload_0
areturn
end
method public+static main ([Ljava/lang/String;)V
limits 0 1
return
end
