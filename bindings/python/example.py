from cbor_edn import ParseError, diag2cbor

try:
    print(diag2cbor("[1, 0x1f, []]").hex())
except ParseError as error:
    raise SystemExit(f"line {error.line}, column {error.column}: {error}")
