"""Who may reach a process over HTTP: addresses, tokens, certificates."""
from __future__ import annotations

import ipaddress
import ssl
from pathlib import Path
from typing import Optional, Sequence

from .failure import Failure


def is_loopback(host: str) -> bool:
    """Whether nobody else reaches this address."""
    try:
        return host == "localhost" or ipaddress.ip_address(host).is_loopback
    except ValueError:
        return False


def read_token(path: Optional[str]) -> Optional[str]:
    """Reads the token that whoever asks has to show, if a file is named."""
    if path is None:
        return None
    try:
        token = Path(path).read_text(encoding="utf-8").strip()
    except (OSError, ValueError) as why:
        raise Failure(f"{path}: {why}") from None
    if not token.isascii() or not token.isprintable() or len(token) < 16:
        raise Failure(f"{path}: a token has at least 16 characters of ASCII")
    return token


def read_certificate(files: Optional[Sequence[str]]) -> Optional[ssl.SSLContext]:
    """Reads the certificate and the key by which a process serves, if they are named."""
    if not files:
        return None
    context = ssl.SSLContext(ssl.PROTOCOL_TLS_SERVER)
    load_certificate(context, files)
    return context


def load_certificate(context: ssl.SSLContext, files: Sequence[str]) -> None:
    """Takes a certificate and its key."""
    try:
        context.load_cert_chain(*files)
    except OSError as why:
        raise Failure(f"{' and '.join(files)}: {why}") from None
