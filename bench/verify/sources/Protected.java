/** Fields and methods of superclasses by way of the class, of super and of other objects; private ones by way of accessors. */
class Protected {
    static class Base {
        protected int count;
        protected long total = 4;
        private String secret = "none";

        protected Base copy() {
            Base copy = new Base();
            copy.count = count + 1;
            return copy;
        }

        protected static int twice(int number) {
            return number * 2;
        }

        public boolean equals(Object other) {
            return other instanceof Base && ((Base) other).secret == secret;
        }

        public int hashCode() {
            return secret.hashCode();
        }
    }

    static class Middle extends Base implements Cloneable {
        protected Base copy() {
            Base base = count > 3 ? super.copy() : this;
            base.count += twice(count);
            base.total -= count;
            return base;
        }

        Object again() throws CloneNotSupportedException {
            return clone();
        }

        public String toString() {
            return super.toString() + count + '/' + total;
        }
    }

    static class Lowest extends Middle {
        Middle other = count == 0 ? new Middle() : this;

        int sum() {
            Middle at = other;
            while (at != this && at instanceof Lowest) {
                at = ((Lowest) at).other;
            }
            return at.count + super.count + (int) this.total + ((Base) this).copy().count;
        }
    }

    public static void main(String[] words) throws CloneNotSupportedException {
        Lowest lowest = new Lowest();
        System.out.println(lowest.sum() + new Middle().again().toString());
        System.out.println(new Base().equals(lowest) ? new Base().secret : "other");
    }
}
