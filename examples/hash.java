// Hashes a password and verifies it, by JNA.
import com.sun.jna.Library;
import com.sun.jna.Native;
import java.nio.charset.StandardCharsets;
import java.security.SecureRandom;

class Hash {
    /** The C library. A size_t is a long on Linux. */
    interface Argon2 extends Library {
        Argon2 LIBRARY = Native.load("argon2", Argon2.class);
        int VERIFY_MISMATCH = -35;

        int argon2id_hash_encoded(int passes, int memory, int lanes, byte[] password, long passwordLength,
                byte[] salt, long saltLength, long hashLength, byte[] encoded, long encodedSize);

        int argon2id_verify(String encoded, byte[] password, long length);

        String argon2_error_message(int code);
    }

    /** Returns the hash of a password, to be stored. */
    static String hash(byte[] password) {
        byte[] salt = new byte[16];
        byte[] encoded = new byte[128];
        new SecureRandom().nextBytes(salt);
        int code = Argon2.LIBRARY.argon2id_hash_encoded(2, 19456, 1, password, password.length, salt, salt.length, 32,
                encoded, encoded.length);
        if (code != 0) {
            throw new IllegalArgumentException(Argon2.LIBRARY.argon2_error_message(code));
        }
        return Native.toString(encoded, StandardCharsets.US_ASCII);
    }

    /** Returns whether a stored hash accepts a password. */
    static boolean accepts(String stored, byte[] password) {
        int code = Argon2.LIBRARY.argon2id_verify(stored, password, password.length);
        if (code != 0 && code != Argon2.VERIFY_MISMATCH) {
            throw new IllegalArgumentException(Argon2.LIBRARY.argon2_error_message(code));
        }
        return code == 0;
    }

    public static void main(String[] args) {
        String stored = hash("correct horse".getBytes(StandardCharsets.UTF_8));
        System.out.println(stored);
        System.out.println(accepts(stored, "correct horse".getBytes(StandardCharsets.UTF_8)) + " "
                + accepts(stored, "wrong horse".getBytes(StandardCharsets.UTF_8)));
    }
}
