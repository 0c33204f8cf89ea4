import java.io.FileDescriptor;
import java.io.FileOutputStream;
import java.io.IOException;
import java.nio.ByteBuffer;
import java.nio.ByteOrder;
import java.util.List;

/** Writes MILLIONS million records to standard output: x, its root, logarithm and exponential by StrictMath, four words of
 *  8 bytes, lowest byte first. A third of the arguments are random bit patterns, the others come from 14 families by turns.
 *  java Stream SEED MILLIONS | compare */
public final class Stream {
    private static final int RANDOM = 7;
    private static final int FAMILIES = 14;

    private static double of(long bits) { return Double.longBitsToDouble(bits); }

    /** From -size to size. */
    private static double within(Arguments.Draw draw, double size) { return (2 * draw.unit() - 1) * size; }

    /** Up to `steps` places away from x. */
    private static double beside(Arguments.Draw draw, double x, int steps) {
        return of(Double.doubleToRawLongBits(x) + draw.below(2 * steps + 1) - steps);
    }

    private static double edgeOfExp(Arguments.Draw draw) {
        double size = of(Arguments.EXP_EDGES[draw.below(Arguments.EXP_EDGES.length)]);
        return beside(draw, draw.below(2) == 0 ? size : -size, 3000);
    }

    private static double edgeOfLog(Arguments.Draw draw) {
        long exponent = 1 + draw.below(2046);
        long digits = Arguments.LOG_EDGES[draw.below(Arguments.LOG_EDGES.length)];
        long edge = exponent << 52 | digits << 32;
        // beside the edge itself, and anywhere in the high words around it
        return draw.below(2) == 0 ? beside(draw, of(edge), 3) : of(edge + (draw.bits() >> 30));
    }

    private static double multipleOfLn2(Arguments.Draw draw) {
        double x = (draw.below(4221) - 2160) * Arguments.HALF_LN2;
        return draw.below(2) == 0 ? beside(draw, x, 200) : x * (1 + Math.scalb(within(draw, 1), -1 - draw.below(50)));
    }

    private static double ofFamily(int family, Arguments.Draw draw) {
        switch (family) {
            case 0: return edgeOfExp(draw);
            case 1: return edgeOfLog(draw);
            case 2: return multipleOfLn2(draw);
            case 3: return of((draw.bits() & Arguments.FRACTION) >> draw.below(52)); // subnormal
            case 4: return 1 + Math.scalb(within(draw, 1), -draw.below(53)); // near 1
            case 5: return within(draw, 750); // all that exp does not round to 0 or infinity
            case 6: return within(draw, 40);
            case 7: return within(draw, 1.2);
            case 8: return Math.scalb(within(draw, 1), draw.below(75) - 60);
            case 9: return -708 - 40 * draw.unit(); // results of exp that are subnormal or 0
            case 10: return 708 + 2 * draw.unit(); // results of exp near overflow
            case 11: return draw.unit();
            case 12: return beside(draw, Arguments.square(draw, draw.below(900) - 500), 2);
            default: return halfwayRoot(draw);
        }
    }

    private static double halfwayRoot(Arguments.Draw draw) {
        int scale = draw.below(900) - 500;
        if (draw.below(2) == 0) return beside(draw, Arguments.product(draw, 2 * scale), 1);
        long c = 2 * (draw.bits() >> (13 + draw.below(50)));
        List<Double> hard = Arguments.halfway(c, scale);
        return hard.isEmpty() ? Arguments.product(draw, 2 * scale + 1) : hard.get(draw.below(hard.size()));
    }

    private static double argument(long i, Arguments.Draw draw) {
        if (i < Arguments.SPECIAL.length) return of(Arguments.SPECIAL[(int) i]);
        int turn = (int) (i % (RANDOM + FAMILIES));
        return turn < RANDOM ? of(draw.bits()) : ofFamily(turn - RANDOM, draw);
    }

    public static void main(String[] args) throws IOException {
        Arguments.Draw draw = new Arguments.Draw(Long.parseLong(args[0]));
        long count = Long.parseLong(args[1]) * 1000000;
        ByteBuffer block = ByteBuffer.allocate(32 * 4096).order(ByteOrder.LITTLE_ENDIAN);
        try (FileOutputStream out = new FileOutputStream(FileDescriptor.out)) {
            for (long i = 0; i < count; i++) {
                double x = argument(i, draw);
                block.putLong(Double.doubleToRawLongBits(x));
                block.putLong(Double.doubleToLongBits(StrictMath.sqrt(x)));
                block.putLong(Double.doubleToLongBits(StrictMath.log(x)));
                block.putLong(Double.doubleToLongBits(StrictMath.exp(x)));
                if (!block.hasRemaining()) {
                    out.write(block.array());
                    block.clear();
                }
            }
            out.write(block.array(), 0, block.position());
        }
    }
}
