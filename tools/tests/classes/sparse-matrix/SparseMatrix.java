/** A matrix of integers in which few are not zero: those are cells in a list for each row and one for each column. */
public class SparseMatrix {

    static final class Cell {
        final int row, column;
        int value;
        Cell right, down;

        Cell(int row, int column, int value) {
            this.row = row;
            this.column = column;
            this.value = value;
        }
    }

    private static final int[][] NEIGHBOURS = { { 0, 1 }, { 1, 0 }, { 0, -1 }, { -1, 0 } };

    private final Cell rows[];
    private final Cell columns[];

    public SparseMatrix(int height, int width) {
        rows = new Cell[height];
        columns = new Cell[width];
    }

    public int get(int row, int column) {
        for (Cell cell = rows[row]; cell != null && cell.column <= column; cell = cell.right) {
            if (cell.column == column) return cell.value;
        }
        return 0;
    }

    public int[][] toArray() {
        int[][] matrix = new int[rows.length][columns.length];
        for (Cell first : rows) {
            for (Cell cell = first; cell != null; cell = cell.right) matrix[cell.row][cell.column] = cell.value;
        }
        return matrix;
    }

    public int aroundOf(int row, int column) {
        int sum = 0;
        for (int[] step : NEIGHBOURS) sum += get(row + step[0], column + step[1]);
        return sum;
    }

    boolean repOk() {
        if (rows == null || columns == null || rows == columns) return false;
        final boolean[][] inRows = new boolean[rows.length][columns.length];
        for (int i = 0; i < rows.length; i++) {
            int last = -1;
            for (Cell cell = rows[i]; cell != null; cell = cell.right) {
                if (cell.row != i || cell.column <= last || cell.value == 0) return false;
                last = cell.column;
                inRows[i][last] = true;
            }
        }
        for (int j = 0; j < columns.length; j++) {
            int last = -1;
            for (Cell cell = columns[j]; cell != null; cell = cell.down) {
                if (cell.column != j || cell.row <= last) return false;
                last = cell.row;
                if (!inRows[last][j]) return false;
                inRows[last][j] = false;
                if (find(cell) != cell) return false;
            }
        }
        for (boolean[] row : inRows) {
            for (boolean left : row) {
                if (left) return false;
            }
        }
        return true;
    }

    private Cell find(Cell wanted) {
        Cell cell;
        for (cell = rows[wanted.row]; cell != null && cell.column < wanted.column; cell = cell.right) {
        }
        return cell;
    }
}
