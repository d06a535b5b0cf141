class 52 public+super FaceArraysOfArrays java/lang/Object
method static call ([[I)[LFace;
limits 1 1
aload_0
areturn
end
method public+static main ([Ljava/lang/String;)V
limits 0 1
return
end
