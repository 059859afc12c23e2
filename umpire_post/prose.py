"""What stands around orders in a mail: attributions and heads of quotations, greetings and closings, in
the languages of usual mail programs.

No line that begins with the first word of an order is any of them. A line is looked at only up to a
bound, so that none takes long.
"""

import difflib
import re
from collections.abc import Collection

# The first words of orders and of what is below a SHEET line.
ORDERS = frozenset("TURN COMPANY BUY BID LIMIT PAR SELL EXCHANGE LAY TOKEN RUN PAY WITHHOLD TRAIN DISCARD PRIVATE RAISE OFFER IF".split())
LONGEST = 300  # characters of a line that may be prose of these kinds
WORD = re.compile(r"[^\W\d_]+")

WROTE = re.compile(
    r"\b(wrote|writes|schrieb|schreibt|écrit|escribió|escreveu|scrisse|scritto|skrev|schreef|geschreven|kirjoitti|kirjutas"
    r"|napisał|napisała|pisze|napsal|napsala|napísal|napísala|napisao|napisala|írta|scris|yazdı|rašė|rakstīja|escrit|escriure"
    r"|написал|написала|пишет|пише|написав|έγραψε)\b|写道|寫道|書きました|のメール|작성|כתב|كتب", re.I)
ADDRESS = re.compile(r"[\w.+-]{1,64}@[\w-]")
DATED = re.compile(r"\d{1,2}[:.]\d{2}(?!\d)|\b(19|20)\d\d(?!\d)|\d{1,2}[./] ?\d{1,2}[./]|\d年|\d월")
BEGUN = re.compile(r"\s*(On|Am|Le|El|Il|Den|Op|Em|W dniu|Dnia|Dne|Dňa|På|Στις|Στο)\b", re.I)

FROM = r"From|Von|De|Da|Van|Från|Fra|Lähettäjä|Od|Nadawca|Odesílatel|От|От кого|Від|Feladó|Kimden|Από|差出人|送信者|发件人|寄件者|보낸 사람"
OTHER = (r"Sent|Date|To|Cc|Subject|Reply-To|Gesendet|Datum|An|Betreff|Envoyé|À|Objet|Inviato|Data|A|Oggetto|Verzonden|Aan|Onderwerp"
         r"|Enviado|Enviado el|Enviado em|Enviada em|Fecha|Para|Asunto|Assunto|Skickat|Till|Ämne|Sendt|Dato|Til|Emne|Lähetetty"
         r"|Päivämäärä|Vastaanottaja|Kopio|Aihe|Wysłano|Do|DW|Temat|Odesláno|Komu|Předmět|Odoslané|Predmet|Отправлено|Дата|Кому|Копия"
         r"|Тема|Надіслано|Elküldve|Címzett|Tárgy|Gönderilme|Gönderildi|Tarih|Kime|Konu|送信日時|日時|宛先|件名|发送时间|日期|收件人|主题|主旨"
         r"|보낸 날짜|받는 사람|제목")
HEAD_OF_MAIL = re.compile(rf"\s*\*?(?:(?P<sender>{FROM})|{OTHER})\s?[:：]\*?(?!\S*//).*", re.I)
HEADS_OF_MAIL = 3  # heads that make a quotation
CONTEXT = 5  # lines below the first of them in which the others stand

BEGINS = re.compile(r"\s*(-{4,}\s*\w.*\w\s*-{4,}|Begin forwarded message:|_{20,})\s*", re.I)
# The post's own letters: their words are no player's.
ANSWERS = "This answers your message, number"
READ = ", as it was read:"
ROUND = r"(?:[PS]R\d{1,4}|OR\d{1,4}\.[123])"
OWN_LETTER = re.compile(rf"\s*({ANSWERS} \d+ .*|SHEET [A-Z0-9]+ {ROUND}{READ}|{ROUND} was played\.|{ROUND} comes next\. It awaits .*"
                        rf"|You still owe a sheet for {ROUND}\. .*|Sheets for {ROUND} are now due .*|The game \S+ of 1830 begins\. .*)", re.I)

CLOSINGS = frozenset(it.casefold() for it in (
    "kind regards", "regards", "best regards", "warm regards", "warmest regards", "with kind regards", "with best regards", "rgds",
    "best wishes", "with best wishes", "best", "all the best", "cheers", "thanks", "thank you", "many thanks", "thanks again", "thx",
    "ta", "sincerely", "yours", "take care", "greetings", "bye", "see you", "good luck", "have fun", "talk soon", "over and out",
    "viele grüße", "viele gruesse", "liebe grüße", "liebe gruesse", "beste grüße",
    "schöne grüße", "schönen gruß", "herzliche grüße", "mit freundlichen grüßen", "mit freundlichen gruessen",
    "freundliche grüße", "grüße", "gruesse", "gruß", "mfg", "lg", "vg", "danke",
    "vielen dank", "tschüss", "bis bald", "servus",
    "cordialement", "bien cordialement", "merci", "amicalement", "salutations", "bonne soirée", "bonne journée", "à bientôt", "bien à",
    "saludos", "un saludo", "un abrazo", "gracias", "atentamente", "cordiali saluti", "distinti saluti", "saluti", "un saluto",
    "grazie", "a presto", "abraço", "abraços", "um abraço", "cumprimentos", "com os melhores cumprimentos", "atenciosamente",
    "obrigado", "obrigada", "groeten", "groetjes", "groet", "met vriendelijke groet", "met vriendelijke groeten",
    "vriendelijke groeten", "mvg", "bedankt", "mvh", "med vänliga hälsningar", "vänliga hälsningar", "hälsningar", "hilsen",
    "vennlig hilsen", "med vennlig hilsen", "venlig hilsen", "med venlig hilsen", "tack", "takk", "terveisin", "terveiset",
    "ystävällisin terveisin", "kiitos", "pozdrawiam", "pozdrowienia", "z poważaniem", "dziękuję", "dzięki", "s pozdravem", "zdravím",
    "pozdrav", "děkuji", "díky", "с уважением", "спасибо", "всего доброго", "привет", "з повагою", "дякую", "üdvözlettel", "üdv",
    "cu stimă", "saygılar", "saygılarımla", "teşekkürler", "よろしくお願いします", "よろしくお願いいたします", "敬具", "谢谢", "此致", "감사합니다"))
GREETINGS = frozenset(it.casefold() for it in (
    "hello", "hi", "hey", "dear", "good morning", "good evening", "good afternoon", "good day", "hallo", "liebe", "lieber", "guten",
    "moin", "bonjour", "bonsoir", "salut", "cher", "chère", "hola", "buenos", "buenas", "ciao", "buongiorno", "salve", "olá", "beste",
    "hoi", "hej", "hei", "moi", "terve", "cześć", "witam", "dzień dobry", "ahoj", "dobrý den", "здравствуйте", "szia", "merhaba",
    "こんにちは", "你好", "안녕하세요"))
LONGEST_PHRASE = 4  # words
MAX_NAMES = 3  # words of a name alone
SIMILAR = 0.6  # of a word and the first word of an order


def is_order(text: str) -> bool:
    """Returns whether a line begins with the first word of an order."""
    return (text[:LONGEST].split(maxsplit=1) or [""])[0].upper() in ORDERS


def is_attribution(text: str) -> bool:
    """Returns whether a line may say who wrote what is below it: by a colon at its end after a verb of
    writing, an address or a time; or by a time with one of the others."""
    if not _may_be_prose(text):
        return False
    is_of_someone, is_dated = _is_of_someone(text), DATED.search(text) is not None
    return (is_of_someone or is_dated) if _ends_in_colon(text) else (is_of_someone and is_dated)


def is_full_attribution(text: str) -> bool:
    """Returns whether a line says who wrote what is below it, and when."""
    return _may_be_prose(text) and _ends_in_colon(text) and _is_of_someone(text) and DATED.search(text) is not None


def is_above_quotation(text: str) -> bool:
    """Returns whether a line right above a quotation belongs to it: one with a colon at its end."""
    return _may_be_prose(text) and _ends_in_colon(text)


def begins_attribution(text: str) -> bool:
    """Returns whether a line may be the front of an attribution that is broken in several lines."""
    return _may_be_prose(text) and not _ends_in_colon(text) and (BEGUN.match(text) is not None or DATED.search(text) is not None or _is_of_someone(text))


def is_head_of_mail(text: str) -> bool:
    return len(text) <= LONGEST and HEAD_OF_MAIL.fullmatch(text) is not None


def are_heads_of_mail(texts: Collection[str]) -> bool:
    """Returns whether lines are the heads of a mail, among them who sent it."""
    found = [HEAD_OF_MAIL.fullmatch(it) for it in texts if len(it) <= LONGEST]
    return sum(it is not None for it in found) >= HEADS_OF_MAIL and any(it["sender"] for it in found if it)


def begins_quotation(text: str) -> bool:
    """Returns whether a line and all below it are another message, or a letter of the post."""
    return len(text) <= LONGEST and (BEGINS.fullmatch(text) is not None or OWN_LETTER.fullmatch(text) is not None)


def is_closing(text: str, names: Collection[str], is_apart: bool) -> bool:
    """Returns whether a line that is no order is an attribution, a greeting, a closing or a name alone.
    `names` are those of its writer, in lower case; any other name must stand apart, below a blank line."""
    if not _may_be_prose(text) or text.strip() == "BEST":  # (of a RUN BEST that was broken)
        return False
    words = WORD.findall(text)
    if _begins_with(words, CLOSINGS) or _begins_with(words, GREETINGS) or is_attribution(text):
        return True
    return (_ends_in_colon(text) or _is_name(text, words, names, is_apart)) and not _is_similar(words)


def _begins_with(words: list[str], phrases: Collection[str]) -> bool:
    front = [it.casefold() for it in words[:LONGEST_PHRASE]]
    return any(" ".join(front[:count]) in phrases for count in range(1, len(front) + 1))


def _is_name(text: str, words: list[str], names: Collection[str], is_apart: bool) -> bool:
    """Returns whether a line is a name and nothing else: one of the writer's, or words that begin with a
    capital letter."""
    if not 0 < len(words) <= MAX_NAMES or any(it.isdigit() for it in text):
        return False
    return words[0].lower() in names or is_apart and all(it.istitle() for it in words)


def _is_similar(words: list[str]) -> bool:
    """Returns whether words may be an order with a slip in its first word."""
    return bool(words) and bool(difflib.get_close_matches(words[0].upper(), ORDERS, 1, SIMILAR))


def _may_be_prose(text: str) -> bool:
    first = (text[:LONGEST].split(maxsplit=1) or [""])[0].upper()
    return len(text) <= LONGEST and bool(first) and not first.startswith(("#", "SHEET", "KEY")) and first not in ORDERS


def _ends_in_colon(text: str) -> bool:
    return text.rstrip().endswith((":", "："))


def _is_of_someone(text: str) -> bool:
    return WROTE.search(text) is not None or ADDRESS.search(text) is not None
