class Picks {
    interface Pet { default String sound() { return "?"; } static Pet none() { return null; } }
    static class Dog implements Pet { public String sound() { return "wuff"; } }
    static class Cat implements Pet { public String sound() { return "miau"; } }
    static class Kitten extends Cat { }
    static Object pick(int n, Object[] more) {
        return n == 0 ? new Dog() : n == 1 ? "text" : n == 2 ? new int[] { n } : more.length > 0 ? more[0] : null;
    }
    static Pet pet(boolean dog) {
        Pet pet = dog ? new Dog() : new Kitten();
        return pet == null ? Pet.none() : pet;
    }
    static Cat cat(boolean young) { return young ? new Kitten() : new Cat(); }
    static int size(Object o) {
        if (o instanceof String) return ((String) o).length();
        if (o instanceof int[]) return ((int[]) o).length;
        if (!(o instanceof Pet)) return -1;
        return o instanceof Cat && !(o instanceof Kitten) ? 1 : ((Pet) o).sound().length();
    }
    static Object[] wider(String[] words, boolean own) {
        Object[] objects = own ? words : new Object[][] { words };
        return objects;
    }
    public static void main(String[] args) {
        System.out.println(size(pick(args.length, args)) + size(pet(true)) + size(cat(false)));
        System.out.println(wider(args, false).length);
    }
}
