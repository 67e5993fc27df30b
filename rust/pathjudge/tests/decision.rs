//! Decisions over the chain of three, through the public interface alone.
use pathjudge::{
    good_for, read, Anchor, AnchorArray, Answer, Budgets, Bytes, Key, Name, Party, Path, Purpose, Question, Refusal, Request, Row, Search,
    Signatures, State,
};
use std::net::IpAddr;

const ROOT: &[u8] = include_bytes!("chain/root.der");
const ISSUER: &[u8] = include_bytes!("chain/issuer.der");
const SERVER: &[u8] = include_bytes!("chain/server.der");
const TOY: &[u8] = &[0x06, 0x03, 0x2a, 0x03, 0x04];
const INTERMEDIATES: &[Bytes] = &[Bytes::new(ISSUER)];
const HOST: Name = Name::Dns(b"www.example.com");

fn root() -> Anchor<'static> {
    Anchor::from_certificate(ROOT).expect("the root is a certificate")
}

fn request<'a, const N: usize>(anchors: &'a AnchorArray<'a, N>) -> Request<'a> {
    Request {
        end_entity: SERVER,
        intermediates: INTERMEDIATES,
        anchors: anchors.list(),
        distrusted: &[],
        time: 1_700_000_000,
        purpose: Purpose::SERVER_AUTHENTICATION,
        name: Some(HOST),
        budgets: Budgets::default(),
    }
}

fn yes(_: &Question) -> Answer {
    Answer::Yes
}

#[test]
fn a_path_is_found_and_counted() {
    let anchors = AnchorArray::new([root()]);
    let path = request(&anchors).judge(&mut yes).expect("a path");
    assert_eq!(path.anchor(), 0);
    assert_eq!(path.intermediates(), [0]);
    assert_eq!(path.used(), Budgets { signatures: 2, extensions: 1, comparisons: 0 });
}

#[test]
fn questions_come_from_the_anchor_down_with_their_parts() {
    let anchors = AnchorArray::new([root()]);
    let mut asked = vec![];
    let mut check = |question: &Question| {
        let Question { signer, subject, key, algorithm, signed, signature } = *question;
        assert_eq!(algorithm, TOY);
        let certificate = if subject == Party::EndEntity { SERVER } else { ISSUER };
        // after the header of the certificate comes what is signed
        assert!(certificate.windows(signed.len()).position(|window| window == signed).is_some_and(|place| place < 4));
        asked.push((signer, subject, key.map(|Key { algorithm, bits }| (algorithm.to_vec(), bits.to_vec())), signature.to_vec()));
        Answer::Yes
    };
    request(&anchors).judge(&mut check).expect("a path");
    let key = |bits: &[u8]| Ok((TOY.to_vec(), bits.to_vec()));
    assert_eq!(
        asked,
        [
            (Party::Anchor(0), Party::Intermediate(0), key(b"root key"), b"root key".to_vec()),
            (Party::Intermediate(0), Party::EndEntity, key(b"issuer key"), b"issuer key".to_vec()),
        ]
    );
}

#[test]
fn each_answer_has_its_refusal() {
    let anchors = AnchorArray::new([root()]);
    for (answer, refusal) in [
        (Answer::Wrong, Refusal::InvalidSignatureForPublicKey),
        (Answer::UnknownAlgorithm, Refusal::UnsupportedSignatureAlgorithmContext),
        (Answer::NotForThisKey, Refusal::UnsupportedSignatureAlgorithmForPublicKeyContext),
        (Answer::KeyUnreadable, Refusal::BadDer),
    ] {
        assert_eq!(request(&anchors).judge(&mut |_: &Question| answer), Err(refusal));
    }
}

#[test]
fn a_key_that_cannot_be_read_signs_nothing() {
    let anchors = AnchorArray::new([Anchor { subject_public_key_info: &[0x30, 0x00, 0x03], ..root() }]);
    let mut seen = None;
    let mut check = |question: &Question| {
        seen = question.key.err();
        Answer::Yes
    };
    let refusal = request(&anchors).judge(&mut check).expect_err("no path");
    assert_eq!(seen, Some(refusal));
}

/// Content with no path: refuses each with CertRevoked.
#[derive(Default)]
struct Discontent(Vec<Path>);

impl Signatures for Discontent {
    fn check(&mut self, _: &Question<'_>) -> Answer {
        Answer::Yes
    }

    fn offer(&mut self, path: &Path) -> Result<(), Refusal> {
        self.0.push(*path);
        Err(Refusal::CertRevoked)
    }
}

#[test]
fn a_refused_offer_lets_the_search_go_on() {
    let anchors = AnchorArray::new([root(), root()]);
    let mut caller = Discontent::default();
    assert_eq!(request(&anchors).judge(&mut caller), Err(Refusal::CertRevoked));
    let offered: Vec<usize> = caller.0.iter().map(Path::anchor).collect();
    assert_eq!(offered, [0, 1]);
}

#[test]
fn an_answer_to_something_else_changes_nothing() {
    let anchors = AnchorArray::new([root()]);
    let mut rows = [Row::EMPTY; 2];
    let mut search = Search::begin(request(&anchors), &mut rows);
    let first = search.state();
    assert!(matches!(first, State::Ask(_)));
    search.reply(Ok(()));
    assert_eq!(search.state(), first);
    search.answer(Answer::Yes);
    search.answer(Answer::Yes);
    let offer = search.state();
    assert!(matches!(offer, State::Offer(_)));
    search.answer(Answer::Wrong);
    assert_eq!(search.state(), offer);
    search.reply(Ok(()));
    let end = search.state();
    assert!(matches!(end, State::Found(_)));
    search.answer(Answer::Wrong);
    search.reply(Err(Refusal::CertRevoked));
    assert_eq!(search.state(), end);
    assert_eq!(search.used().signatures, 2);
}

#[test]
fn what_a_request_says_counts() {
    let anchors = AnchorArray::new([root()]);
    let good = request(&anchors);
    let budgets = Budgets::default();
    let root_key = [Bytes::new(root().subject_public_key_info)];
    let nobody = AnchorArray::new([]);
    // permitted: the DNS names below example.org
    let elsewhere = AnchorArray::new([Anchor { name_constraints: Some(b"\xa0\x0f\x30\x0d\x82\x0bexample.org"), ..root() }]);
    for (request, refusal) in [
        (Request { end_entity: &SERVER[1..], ..good }, Refusal::TrailingData(pathjudge::DerTypeId::SignedData)),
        (Request { end_entity: ISSUER, ..good }, Refusal::CaUsedAsEndEntity),
        (Request { intermediates: &[], ..good }, Refusal::UnknownIssuer),
        (Request { anchors: nobody.list(), ..good }, Refusal::UnknownIssuer),
        (Request { anchors: elsewhere.list(), ..good }, Refusal::NameConstraintViolation),
        (Request { distrusted: &root_key, ..good }, Refusal::CertDistrusted),
        (Request { time: 0, ..good }, Refusal::CertNotValidYet),
        (Request { time: u64::MAX, ..good }, Refusal::CertExpired),
        (Request { purpose: Purpose { demanded: true, ..good.purpose }, ..good }, Refusal::RequiredEkuNotFoundContext),
        (Request { name: Some(Name::Dns(b"example.com")), ..good }, Refusal::CertNotValidForName),
        (Request { name: Some(Name::V4([192, 0, 2, 2])), ..good }, Refusal::CertNotValidForName),
        (Request { budgets: Budgets { signatures: 1, ..budgets }, ..good }, Refusal::MaximumSignatureChecksExceeded),
        (Request { budgets: Budgets { extensions: 0, ..budgets }, ..good }, Refusal::MaximumPathBuildCallsExceeded),
        (
            Request { anchors: elsewhere.list(), budgets: Budgets { comparisons: 0, ..budgets }, ..good },
            Refusal::MaximumNameConstraintComparisonsExceeded,
        ),
    ] {
        assert_eq!(request.judge(&mut yes), Err(refusal));
    }
    for request in [
        Request { name: None, ..good },
        Request { name: Some(Name::V4([192, 0, 2, 1])), ..good },
        Request { purpose: Purpose::CLIENT_AUTHENTICATION, ..good },
        Request { budgets: Budgets { signatures: 2, extensions: 1, comparisons: 0 }, ..good },
    ] {
        assert!(request.judge(&mut yes).is_ok());
    }
}

#[test]
fn names_and_certificates_by_themselves() {
    assert_eq!(read(SERVER), Ok(()));
    assert_eq!(read(&[]), Err(Refusal::TrailingData(pathjudge::DerTypeId::SignedData)));
    assert_eq!(good_for(SERVER, &HOST), Ok(()));
    assert_eq!(good_for(SERVER, &Name::from(IpAddr::from([192, 0, 2, 1]))), Ok(()));
    assert_eq!(good_for(SERVER, &Name::from(IpAddr::from([0u16; 8]))), Err(Refusal::CertNotValidForName));
    assert_eq!(good_for(SERVER, &Name::Dns(b"*.example.com")), Err(Refusal::MalformedDnsIdentifier));
    assert_eq!(good_for(ROOT, &HOST), Err(Refusal::CertNotValidForName));
}

#[test]
fn an_anchor_is_read_out_of_a_certificate() {
    let anchor = root();
    assert!(anchor.subject.ends_with(b"Root"));
    assert!(anchor.subject_public_key_info.ends_with(b"root key"));
    assert_eq!(anchor.name_constraints, None);
    assert_eq!(Anchor::from_certificate(&ROOT[..ROOT.len() - 1]), Err(Refusal::TrailingData(pathjudge::DerTypeId::SignedData)));
}

#[test]
fn a_request_may_go_to_another_thread() {
    fn both<T: Send + Sync>(_: T) {}
    both(request(&AnchorArray::new([root()])));
}

#[cfg(feature = "alloc")]
#[test]
fn a_vector_of_anchors_is_an_array_of_them() {
    use pathjudge::AnchorVec;
    let bound = Anchor { name_constraints: Some(b"\xa0\x0f\x30\x0d\x82\x0bexample.org"), ..root() };
    let array = AnchorArray::new([bound, root()]);
    let vector: AnchorVec = [bound, root()].into_iter().collect();
    let path = request(&array).judge(&mut yes).expect("a path");
    assert_eq!(path.anchor(), 1);
    assert_eq!(Request { anchors: vector.list(), ..request(&array) }.judge(&mut yes), Ok(path));
}

#[test]
fn the_decision_is_the_same_with_any_number_of_rows() {
    let anchors = AnchorArray::new([root()]);
    let request = request(&anchors);
    let path = request.judge(&mut yes).expect("a path");
    for count in 0..4 {
        assert_eq!(request.judge_in(&mut vec![Row::EMPTY; count], &mut yes), Ok(path));
    }
}
