"""Why a call refuses: an exception for each question. docs/sentences writes this file from the table of docs/REFUSALS.md."""


class Refusal(Exception):
    """A call refused: the number of the question, its sentence, and for some questions the level and the row where it failed."""

    number = 0
    sentence = "nothing is refused"
    placed = False

    def __init__(self, level=0, row=0):
        super().__init__(level, row)
        self.level = level
        self.row = row

    def __str__(self):
        place = f" (level {self.level}, row {self.row})" if self.placed else ""
        return f"question {self.number}: {self.sentence}{place}"


class TooLarge(Refusal):
    """There are more than 65,536 rows or 1,048,576 entries."""

    number = 1
    sentence = "there are more than 65,536 rows or 1,048,576 entries"
    placed = False


class BadOffsets(Refusal):
    """The offsets do not rise from 0 to the number of entries, one more than rows, or there are not as many values as columns."""

    number = 2
    sentence = "the offsets do not rise from 0 to the number of entries, one more than rows, or there are not as many values as columns"
    placed = False


class BadColumns(Refusal):
    """The columns of a row do not rise, or one is not below the number of rows."""

    number = 3
    sentence = "the columns of a row do not rise, or one is not below the number of rows"
    placed = False


class WeightCount(Refusal):
    """There are not as many weights as entries."""

    number = 4
    sentence = "there are not as many weights as entries"
    placed = False


class BadWeight(Refusal):
    """A weight is not finite or below zero."""

    number = 5
    sentence = "a weight is not finite or below zero"
    placed = False


class InvalidControls(Refusal):
    """The controls are outside their ranges."""

    number = 6
    sentence = "the controls are outside their ranges"
    placed = False


class NotCholesky(Refusal):
    """The coarse solver is not Cholesky."""

    number = 7
    sentence = "the coarse solver is not Cholesky"
    placed = False


class NoRows(Refusal):
    """There is no row."""

    number = 8
    sentence = "there is no row"
    placed = False


class StoreTooSmall(Refusal):
    """The stores or the statistics are too small."""

    number = 9
    sentence = "the stores or the statistics are too small"
    placed = False


class NotSymmetric(Refusal):
    """An entry off the diagonal has no mirror, differs from it by more than 1e-12, or is not finite."""

    number = 10
    sentence = "an entry off the diagonal has no mirror, differs from it by more than 1e-12, or is not finite"
    placed = False


class MissingDiagonal(Refusal):
    """A diagonal entry is missing."""

    number = 11
    sentence = "a diagonal entry is missing"
    placed = True


class BadDiagonal(Refusal):
    """A diagonal is not finite or not above zero."""

    number = 12
    sentence = "a diagonal is not finite or not above zero"
    placed = True


class BadReciprocal(Refusal):
    """The reciprocal of a diagonal is not finite."""

    number = 13
    sentence = "the reciprocal of a diagonal is not finite"
    placed = True


class TooManyCoupled(Refusal):
    """More rows are coupled on the last level than coarsest_cells allows."""

    number = 14
    sentence = "more rows are coupled on the last level than coarsest_cells allows"
    placed = False


class BadPivot(Refusal):
    """A Cholesky pivot is not finite or not above zero."""

    number = 15
    sentence = "a Cholesky pivot is not finite or not above zero"
    placed = True


class BadDicPivot(Refusal):
    """A DIC pivot is not finite or not above zero."""

    number = 16
    sentence = "a DIC pivot is not finite or not above zero"
    placed = True


class BadDicReciprocal(Refusal):
    """The reciprocal of a DIC pivot is not finite."""

    number = 17
    sentence = "the reciprocal of a DIC pivot is not finite"
    placed = True


class BadCoarseValue(Refusal):
    """A Galerkin value is not finite."""

    number = 18
    sentence = "a Galerkin value is not finite"
    placed = False


class UnsoundStores(Refusal):
    """The stores do not hold a hierarchy of this handle."""

    number = 19
    sentence = "the stores do not hold a hierarchy of this handle"
    placed = False


class WrongLength(Refusal):
    """The right-hand side or the solution has not as many elements as there are rows."""

    number = 20
    sentence = "the right-hand side or the solution has not as many elements as there are rows"
    placed = False


class BadInput(Refusal):
    """The iteration limit is zero, a tolerance is not finite or below zero, or a vector is not finite."""

    number = 21
    sentence = "the iteration limit is zero, a tolerance is not finite or below zero, or a vector is not finite"
    placed = False


class BadNormalization(Refusal):
    """The normalization is not finite."""

    number = 22
    sentence = "the normalization is not finite"
    placed = False


class BadResidual(Refusal):
    """The norm of a residual is not finite."""

    number = 23
    sentence = "the norm of a residual is not finite"
    placed = False


class BadCoarseSolution(Refusal):
    """The solution of the last level is not finite."""

    number = 24
    sentence = "the solution of the last level is not finite"
    placed = False


class BadSmootherOutput(Refusal):
    """What the smoother gives is not finite."""

    number = 25
    sentence = "what the smoother gives is not finite"
    placed = False


class BadCorrectionProduct(Refusal):
    """A product of a correction is not finite."""

    number = 26
    sentence = "a product of a correction is not finite"
    placed = False


class BadCorrectionScale(Refusal):
    """The scale of a correction is not finite."""

    number = 27
    sentence = "the scale of a correction is not finite"
    placed = False


class BadDotProduct(Refusal):
    """A dot product of the accelerator is not finite."""

    number = 28
    sentence = "a dot product of the accelerator is not finite"
    placed = False


class ZeroImage(Refusal):
    """The image of a correction is zero."""

    number = 29
    sentence = "the image of a correction is zero"
    placed = False


class BadDirection(Refusal):
    """A direction of the accelerator is not finite."""

    number = 30
    sentence = "a direction of the accelerator is not finite"
    placed = False


class OtherPattern(Refusal):
    """Offsets or columns are not those of the build, or there are not as many values as columns."""

    number = 31
    sentence = "offsets or columns are not those of the build, or there are not as many values as columns"
    placed = False


class BadRecord(Refusal):
    """A record of a problem file is unknown, repeated, out of place, out of range, too short, too large or missing."""

    number = 32
    sentence = "a record of a problem file is unknown, repeated, out of place, out of range, too short, too large or missing"
    placed = False


class BadLoad(Refusal):
    """A load's seed or an extent is zero, there are more than 65,536 cells, or the slices are too short."""

    number = 35
    sentence = "a load's seed or an extent is zero, there are more than 65,536 cells, or the slices are too short"
    placed = False


class BadMatrixFile(Refusal):
    """A matrix file has another header, a size line not of three numbers or not square, or an entry that is malformed, repeated, missing or surplus."""

    number = 38
    sentence = "a matrix file has another header, a size line not of three numbers or not square, or an entry that is malformed, repeated, missing or surplus"
    placed = False


class BadNumber(Refusal):
    """A value of a matrix file is no number of at most 15 digits and a power of ten from -22 to 22."""

    number = 39
    sentence = "a value of a matrix file is no number of at most 15 digits and a power of ten from -22 to 22"
    placed = False


class UnequalMirrors(Refusal):
    """A matrix to be written as symmetric has an entry whose mirror is missing or unequal."""

    number = 40
    sentence = "a matrix to be written as symmetric has an entry whose mirror is missing or unequal"
    placed = False


# The exceptions by their numbers.
REFUSALS = {
    1: TooLarge,
    2: BadOffsets,
    3: BadColumns,
    4: WeightCount,
    5: BadWeight,
    6: InvalidControls,
    7: NotCholesky,
    8: NoRows,
    9: StoreTooSmall,
    10: NotSymmetric,
    11: MissingDiagonal,
    12: BadDiagonal,
    13: BadReciprocal,
    14: TooManyCoupled,
    15: BadPivot,
    16: BadDicPivot,
    17: BadDicReciprocal,
    18: BadCoarseValue,
    19: UnsoundStores,
    20: WrongLength,
    21: BadInput,
    22: BadNormalization,
    23: BadResidual,
    24: BadCoarseSolution,
    25: BadSmootherOutput,
    26: BadCorrectionProduct,
    27: BadCorrectionScale,
    28: BadDotProduct,
    29: ZeroImage,
    30: BadDirection,
    31: OtherPattern,
    32: BadRecord,
    35: BadLoad,
    38: BadMatrixFile,
    39: BadNumber,
    40: UnequalMirrors,
}


def refusal(number, level=0, row=0):
    """The exception of a question that refused."""
    return REFUSALS[number](level, row)
