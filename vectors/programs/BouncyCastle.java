import java.io.BufferedReader;
import java.io.InputStreamReader;
import java.lang.reflect.Method;
import java.util.HexFormat;
import java.util.List;
import org.bouncycastle.crypto.digests.Blake2bDigest;
import org.bouncycastle.crypto.generators.Argon2BytesGenerator;
import org.bouncycastle.crypto.params.Argon2Parameters;

/** Answers the requests of vectors/programs/README.md by Bouncy Castle: java -Xmx2g -cp bcprov.jar BouncyCastle.java. */
class BouncyCastle {
    private static final List<String> ALGORITHMS = List.of("argon2d", "argon2i", "argon2id");

    public static void main(String[] words) throws Exception {
        var reader = new BufferedReader(new InputStreamReader(System.in));
        for (String line = reader.readLine(); line != null; line = reader.readLine()) {
            System.out.println(answer(line.split(" ")));
        }
    }

    private static String answer(String[] words) throws Exception {
        if (!List.of("hash", "long", "blake2b").contains(words[0])) {
            return "unknown";
        }
        byte[] out = new byte[Integer.parseInt(words[1])];
        try {
            write(words, out);
        } catch (RuntimeException | OutOfMemoryError error) {
            return "refused: " + error;
        }
        return HexFormat.of().formatHex(out);
    }

    private static void write(String[] words, byte[] out) throws Exception {
        switch (words[0]) {
            case "hash":
                var settings = new Argon2Parameters.Builder(ALGORITHMS.indexOf(words[2]))
                        .withVersion(Integer.parseUnsignedInt(words[3]))
                        .withMemoryAsKB(Integer.parseInt(words[4]))
                        .withIterations(Integer.parseInt(words[5]))
                        .withParallelism(Integer.parseInt(words[6]))
                        .withSalt(bytes(words[8]))
                        .withSecret(bytes(words[9]))
                        .withAdditional(bytes(words[10]));
                var generator = new Argon2BytesGenerator();
                generator.init(settings.build());
                generator.generateBytes(bytes(words[7]), out);
                break;
            case "long":
                // (the method has no public name)
                Method method = Argon2BytesGenerator.class
                        .getDeclaredMethod("hash", byte[].class, byte[].class, int.class, int.class);
                method.setAccessible(true);
                method.invoke(new Argon2BytesGenerator(), bytes(words[2]), out, 0, out.length);
                break;
            default:
                var digest = new Blake2bDigest(8 * out.length);
                byte[] message = bytes(words[2]);
                digest.update(message, 0, message.length);
                digest.doFinal(out, 0);
        }
    }

    private static byte[] bytes(String word) {
        return word.equals("-") ? new byte[0] : HexFormat.of().parseHex(word);
    }
}
