// Fields of objects, read and set.
class Bodies {
    static final class Body {
        int x, y, dx, dy;
        long energy;
    }

    static void move(Body body) {
        body.x += body.dx;
        body.y += body.dy;
        if (body.x < 0 || body.x > 10000) {
            body.dx = -body.dx;
        }
        if (body.y < 0 || body.y > 10000) {
            body.dy = -body.dy;
        }
        body.energy += (long) body.dx * body.dx + (long) body.dy * body.dy;
    }

    public static void main(String[] args) {
        Body[] bodies = new Body[100];
        for (int i = 0; i < bodies.length; i++) {
            Body body = new Body();
            body.x = i * 97;
            body.y = i * 89;
            body.dx = i % 7 - 3;
            body.dy = i % 11 - 5;
            bodies[i] = body;
        }
        for (int round = 0; round < 25000; round++) {
            for (int i = 0; i < bodies.length; i++) {
                move(bodies[i]);
            }
        }
        long sum = 0;
        for (int i = 0; i < bodies.length; i++) {
            sum += bodies[i].energy + bodies[i].x - bodies[i].y;
        }
        System.out.println(sum);
    }
}
