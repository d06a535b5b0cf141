class 52 public+super ProtectedClone java/lang/Object
method static call (Ljava/lang/String;)V
limits 1 1
aload_0
invokevirtual java/lang/Object clone ()Ljava/lang/Object;
pop
return
end
method public+static main ([Ljava/lang/String;)V
limits 0 1
return
end
