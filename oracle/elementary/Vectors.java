import java.io.IOException;
import java.nio.charset.StandardCharsets;
import java.nio.file.Files;
import java.nio.file.Path;
import java.util.LinkedHashSet;
import java.util.Set;

/** Writes the test vectors of the crate `vectors`: FOLDER/stdin, a bit pattern to a line, and FOLDER/stdout, Java's answers.
 *  See README.md. */
public final class Vectors {
    private static final Arguments.Draw DRAW = new Arguments.Draw(20040113);
    private static final Set<Long> ALL = new LinkedHashSet<>();

    private static void near(long bits, int steps) {
        for (long d = -steps; d <= steps; d++) ALL.add(bits + d);
    }

    private static void nearBothSigns(long size, int steps) {
        near(size, steps);
        near(size | Arguments.SIGN, steps);
    }

    private static void number(double x) { ALL.add(Double.doubleToRawLongBits(x)); }

    private static void nearNumber(double x, int steps) { near(Double.doubleToRawLongBits(x), steps); }

    /** The lowest, the second, the highest and a random number of each length in binary digits. */
    private static void subnormals() {
        for (int b = 0; b < 52; b++) {
            long low = 1L << b;
            long random = low + (DRAW.bits() & (low - 1));
            ALL.add(low);
            ALL.add(low + (b == 0 ? 0 : 1));
            ALL.add(2 * low - 1);
            ALL.add(random);
            ALL.add(random | Arguments.SIGN);
        }
    }

    private static void exponential() {
        for (long edge : Arguments.EXP_EDGES) nearBothSigns(edge, 3);
        // where k changes: the scaling's form at -1021, -1022, the last exponents at 1023, 1024, -1074, -1075
        for (int k : new int[] {1020, 1021, 1022, 1023, 1024, 1074, 1075}) nearBothSigns(Arguments.firstSizeOf(k), 3);
        for (int k = 2; k < 1075; k += 53) {
            nearBothSigns(Arguments.firstSizeOf(k) - 1, 0);
            nearBothSigns(Arguments.firstSizeOf(k), 0);
        }
        // multiples of ln2 / 2, odd and even ones by turns, over the whole range
        for (int m = -2150; m <= 2048; m += 13) nearNumber(m * Arguments.HALF_LN2, 1);
    }

    private static void logarithm() {
        for (long exponent : new long[] {1, 2, 512, 1021, 1022, 1023, 1024, 1025, 1536, 2046})
            for (long edge : Arguments.LOG_EDGES) near(exponent << 52 | edge << 32, 3);
        // the same edges where the argument is subnormal and scaled first
        for (int shift : new int[] {1, 4, 11, 19})
            for (long edge : Arguments.LOG_EDGES) near((1L << 52 | edge << 32) >> shift, 1);
        for (int b = 1; b <= 53; b++) {
            number(1 + Math.scalb(1.0, -b));
            number(1 - Math.scalb(1.0, -b));
        }
        for (int e = -1074; e <= 1023; e += 16) number(Math.scalb(1.0, e));
    }

    private static void root() {
        for (int n = 2; n <= 20; n++) nearNumber(n * n, 1);
        for (int i = 0; i < 40; i++) nearNumber(Arguments.square(DRAW, 0), 1);
        for (int i = 0; i < 40; i++) nearNumber(Arguments.square(DRAW, DRAW.below(900) - 500), 1);
        for (int i = 0; i < 60; i++) nearNumber(Arguments.product(DRAW, DRAW.below(2000) - 1000), 1);
        for (long c = -40; c <= 40; c += 2)
            for (double x : Arguments.halfway(c, DRAW.below(900) - 500)) number(x);
        // odd and even exponents by turns
        for (long e = 1; e <= 2046; e += 17) ALL.add(e << 52 | DRAW.bits() & Arguments.FRACTION);
    }

    private static void random() {
        for (int i = 0; i < 500; i++) ALL.add(DRAW.bits());
        for (int i = 0; i < 300; i++) number(-750 + 1460 * DRAW.unit());
        for (int i = 0; i < 300; i++) number(-40 * DRAW.unit());
        for (int i = 0; i < 300; i++) number(DRAW.unit());
    }

    /** 16 digits; every NaN as 7ff8000000000000. */
    private static String pattern(double x) { return String.format("%016x", Double.doubleToLongBits(x)); }

    public static void main(String[] args) throws IOException {
        for (long bits : Arguments.SPECIAL) ALL.add(bits);
        subnormals();
        exponential();
        logarithm();
        root();
        random();
        StringBuilder in = new StringBuilder();
        StringBuilder out = new StringBuilder();
        for (long bits : ALL) {
            double x = Double.longBitsToDouble(bits);
            in.append(String.format("%016x\n", bits));
            out.append(pattern(x)).append(' ').append(pattern(StrictMath.sqrt(x))).append(' ');
            out.append(pattern(StrictMath.log(x))).append(' ').append(pattern(StrictMath.exp(x))).append(' ');
            out.append(pattern(-0.5 * x * x - 0.91893853320467274178)).append('\n');
        }
        Files.write(Path.of(args[0], "stdin"), in.toString().getBytes(StandardCharsets.US_ASCII));
        Files.write(Path.of(args[0], "stdout"), out.toString().getBytes(StandardCharsets.US_ASCII));
        System.out.println(ALL.size() + " arguments");
    }
}
