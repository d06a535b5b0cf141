class 52 public+super First java/lang/Object
method public+static main ([Ljava/lang/String;)V
limits 3 1
getstatic java/lang/System out Ljava/io/PrintStream;
bipush 6
bipush 7
imul
invokevirtual java/io/PrintStream println (I)V
return
end
