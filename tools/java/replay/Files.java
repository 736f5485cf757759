package replay;

import java.io.IOException;
import java.nio.charset.CharacterCodingException;
import java.nio.file.Path;

/** Reads files. */
final class Files {
    private Files() {}

    /** What a file holds, as text. */
    static String textOf(Path file) throws Fault {
        try {
            return java.nio.file.Files.readString(file);
        } catch (CharacterCodingException broken) {
            throw new Fault(file + ": not in UTF-8");
        } catch (IOException fault) {
            throw new Fault(file + ": can't be read");
        }
    }
}
