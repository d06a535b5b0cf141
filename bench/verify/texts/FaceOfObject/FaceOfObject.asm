class 52 public+super FaceOfObject java/lang/Object
method static call (Ljava/lang/Object;)V
limits 1 1
aload_0
invokeinterface interface Face own ()V
return
end
method public+static main ([Ljava/lang/String;)V
limits 0 1
return
end
