/** Planets and what is said of them: an enum whose constants have fields and bodies of their own, and a switch over texts. */
public class Planets {
    enum Planet {
        MERCURY(4879, 0), VENUS(12104, 0),
        EARTH(12756, 1) {
            @Override
            String note() {
                return "here";
            }
        },
        MARS(6792, 2),
        JUPITER(142984, 95) {
            @Override
            String note() {
                return "the largest";
            }
        };

        final int kilometres;
        final int moons;

        Planet(int kilometres, int moons) {
            this.kilometres = kilometres;
            this.moons = moons;
        }

        String note() {
            return moons == 0 ? "no moon" : "";
        }
    }

    static String answer(String question, Planet planet) {
        switch (question) {
            case "size":
                return planet.kilometres + " km";
            case "moons":
                return String.valueOf(planet.moons);
            case "note":
                return planet.note();
            default:
                throw new IllegalArgumentException("no such question: " + question);
        }
    }

    static String kind(Planet planet) {
        switch (planet) {
            case MERCURY:
            case VENUS:
            case EARTH:
            case MARS:
                return "rock";
            default:
                return "gas";
        }
    }

    public static void main(String[] arguments) {
        for (Planet planet : Planet.values()) {
            System.out.println(planet.ordinal() + " " + planet + ", " + kind(planet) + ", " + answer("size", planet) + " " + answer("note", planet));
        }
        for (String name : new String[] {"MARS", "PLUTO"}) {
            try {
                System.out.println(name + " has moons: " + answer("moons", Planet.valueOf(name)));
            } catch (IllegalArgumentException none) {
                System.out.println(name + " is no planet");
            }
        }
        System.out.println(Planet.EARTH.compareTo(Planet.MARS) < 0 ? "Mars is farther out" : "Mars is nearer");
        try {
            answer("colour", Planet.MARS);
        } catch (IllegalArgumentException e) {
            System.out.println(e.getMessage());
        }
    }
}
