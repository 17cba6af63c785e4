//! The thirteen checks of document 003, on models that give each temporary
//! pattern a Tag of its own and on models that share Tags among them.

mod build;

use build::Step::{Pattern, Temporary, Value};
use build::*;
use lvs_reference::{verdict, SignAnswer, Verdict};

fn is_allowed(model: &[u8], packet: &str, key: &str) -> bool {
    match sign(model, &name(packet), &name(key)) {
        SignAnswer::Allowed { .. } => true,
        SignAnswer::NotAllowed => false,
        SignAnswer::Refused(refusal) => panic!("{refusal}"),
    }
}

/// How a compiler numbers temporary patterns.
#[derive(Clone, Copy, Debug)]
enum Numbering {
    /// A Tag for each occurrence, as document 000 says.
    Occurrences,
    /// A Tag for each one that is written, whatever rules it is embedded in.
    Written,
    /// The same Tag for all.
    One,
}

use Numbering::{Occurrences, One, Written};

const NUMBERINGS: [Numbering; 3] = [Occurrences, Written, One];

impl Numbering {
    /// A temporary pattern, given how many are named and which one it is of
    /// those that are written.
    fn temporary(self, named: u64, written: u64, constraints: Vec<Vec<u8>>) -> Step {
        match self {
            Occurrences => Temporary(constraints),
            Written => Pattern(named + written, constraints),
            One => Pattern(named + 1, constraints),
        }
    }

    /// The steps of `#KEY: "KEY"/_/_/_`.
    fn key_steps(self, named: u64) -> Vec<Step> {
        let patterns = (1..=3).map(|written| self.temporary(named, written, vec![]));
        [Value("KEY")].into_iter().chain(patterns).collect()
    }
}

fn steps(parts: &[&[Step]]) -> Vec<Step> {
    parts.concat()
}

mod quick_example {
    use super::*;

    const CATEGORY: u64 = 1;
    const YEAR: u64 = 2;
    const MONTH: u64 = 3;
    const ROLE: u64 = 4;
    const AUTHOR: u64 = 5;
    const ADMIN: u64 = 6;
    const NAMED: u64 = 6;

    const AUTHOR_KEY: &str = "/a/blog/author/xinyu/KEY/1/admin/1";
    const ADMIN_KEY: &str = "/a/blog/admin/admin/KEY/1/root/1";

    /// The schema with this NamedPatternCnt.
    fn counted_schema(numbering: Numbering, count: u64) -> Vec<u8> {
        let named = |tag| Pattern(tag, vec![]);
        let key = numbering.key_steps(NAMED);
        let site = [Value("a"), Value("blog")];
        let role = Pattern(ROLE, vec![constraint(&[value("author")])]);
        let mut schema = Schema::new(NAMED);
        let root = schema.rule(&steps(&[&site, &key]));
        let article = [Value("article"), named(CATEGORY), named(YEAR), named(MONTH)];
        let article = schema.rule(&steps(&[&site, &article]));
        let author = schema.rule(&steps(&[&site, &[role, named(AUTHOR)], &key]));
        let admin = [Value("admin"), named(ADMIN)];
        let admin = schema.rule(&steps(&[&site, &admin, &key]));
        schema.sign(article, &[author]);
        schema.sign(author, &[admin]);
        schema.sign(admin, &[root]);
        schema.encode_counted(count)
    }

    fn assert_allowed(packet: &str, key: &str, expected: bool) {
        for numbering in NUMBERINGS {
            let model = counted_schema(numbering, NAMED);
            assert_eq!(is_allowed(&model, packet, key), expected, "{numbering:?}");
        }
    }

    #[test]
    fn is_accepted() {
        for numbering in NUMBERINGS {
            let model = counted_schema(numbering, NAMED);
            assert_eq!(verdict(&model), Verdict::Accepted(23));
        }
    }

    #[test]
    fn author_signs_article() {
        assert_allowed("/a/blog/article/math/2022/03", AUTHOR_KEY, true);
    }

    #[test]
    fn admin_signs_author() {
        assert_allowed(AUTHOR_KEY, ADMIN_KEY, true);
    }

    #[test]
    fn root_does_not_sign_author() {
        assert_allowed(AUTHOR_KEY, "/a/blog/KEY/1/self/1", false);
    }

    /// The request's own case: if the Tags that the rules share were named, the
    /// issuer parts would have to agree.
    #[test]
    fn only_named_tags_must_agree() {
        let named = counted_schema(Written, NAMED + 3);
        assert!(!is_allowed(&named, AUTHOR_KEY, ADMIN_KEY));
        let same_issuer = "/a/blog/admin/admin/KEY/1/admin/1";
        assert!(is_allowed(&named, AUTHOR_KEY, same_issuer));
        // the issuer's Tag is the second of the three
        let with_issuer = counted_schema(Written, NAMED + 2);
        assert!(!is_allowed(&with_issuer, AUTHOR_KEY, ADMIN_KEY));
        let without_issuer = counted_schema(Written, NAMED + 1);
        assert!(is_allowed(&without_issuer, AUTHOR_KEY, ADMIN_KEY));
    }

    /// With one Tag for all, even the three parts of one key would have to agree.
    #[test]
    fn parts_of_one_key_need_not_agree() {
        let article = "/a/blog/article/math/2022/03";
        let named = counted_schema(One, NAMED + 1);
        assert!(!is_allowed(&named, article, AUTHOR_KEY));
        assert!(is_allowed(
            &named,
            article,
            "/a/blog/author/xinyu/KEY/1/1/1"
        ));
        let temporary = counted_schema(One, NAMED);
        assert!(is_allowed(&temporary, article, AUTHOR_KEY));
    }
}

mod tutorial {
    use super::*;

    const ADMIN_ID: u64 = 1;
    const ID: u64 = 2;
    const YEAR: u64 = 3;
    const ARTICLE_ID: u64 = 4;
    const NAMED: u64 = 4;

    const ROOT_KEY: &str = "/ndn/blog/KEY/1/self/1";
    const ADMIN_KEY: &str = "/ndn/blog/admin/000001/KEY/1/root/1";
    const AUTHOR_KEY: &str = "/ndn/blog/author/100001/KEY/1/000001/1";

    fn role(numbering: Numbering, names: &[&str]) -> Step {
        let options: Vec<Vec<u8>> = names.iter().map(|name| value(name)).collect();
        numbering.temporary(NAMED, 4, vec![constraint(&options)])
    }

    fn checked(tag: u64, function: &str) -> Step {
        Pattern(tag, vec![constraint(&[call(function, &[])])])
    }

    fn schema(numbering: Numbering) -> Vec<u8> {
        let key = numbering.key_steps(NAMED);
        let role = |names: &[&str]| role(numbering, names);
        let platform = [Value("ndn"), Value("blog")];
        let id = || checked(ID, "$isValidID");
        let mut schema = Schema::new(NAMED);
        let root = schema.rule(&steps(&[&platform, &key]));
        let admin = [role(&["admin"]), Pattern(ADMIN_ID, vec![])];
        let admin = schema.rule(&steps(&[&platform, &admin, &key]));
        let author = [role(&["author"]), id()];
        let author = schema.rule(&steps(&[&platform, &author, &key]));
        let user = [role(&["reader", "author"]), id()];
        let user = schema.rule(&steps(&[&platform, &user, &key]));
        let year = checked(YEAR, "$isValidYear");
        let article = [
            Pattern(ID, vec![]),
            Value("post"),
            year,
            Pattern(ARTICLE_ID, vec![]),
        ];
        let article = schema.rule(&steps(&[&platform, &article]));
        schema.sign(admin, &[root]);
        schema.sign(author, &[admin]);
        schema.sign(user, &[admin]);
        schema.sign(article, &[admin, author]);
        schema.encode()
    }

    fn assert_allowed(packet: &str, key: &str, expected: bool) {
        for numbering in NUMBERINGS {
            let model = schema(numbering);
            assert_eq!(is_allowed(&model, packet, key), expected, "{numbering:?}");
        }
    }

    #[test]
    fn is_accepted() {
        for numbering in NUMBERINGS {
            assert_eq!(verdict(&schema(numbering)), Verdict::Accepted(29));
        }
    }

    #[test]
    fn root_signs_admin() {
        assert_allowed(ADMIN_KEY, ROOT_KEY, true);
    }

    #[test]
    fn key_must_be_in_capitals() {
        assert_allowed("/ndn/blog/admin/000001/key/1/root/1", ROOT_KEY, false);
    }

    #[test]
    fn admin_does_not_sign_admin() {
        assert_allowed("/ndn/blog/admin/000002/KEY/1/root/1", ADMIN_KEY, false);
    }

    #[test]
    fn admin_signs_author() {
        assert_allowed(AUTHOR_KEY, ADMIN_KEY, true);
    }

    #[test]
    fn author_needs_a_valid_id() {
        assert_allowed("/ndn/blog/author/1000/KEY/1/000001/1", ADMIN_KEY, false);
    }

    #[test]
    fn admin_signs_reader() {
        assert_allowed("/ndn/blog/reader/200001/KEY/1/000001/1", ADMIN_KEY, true);
    }

    #[test]
    fn author_signs_article() {
        assert_allowed("/ndn/blog/100001/post/2022/1", AUTHOR_KEY, true);
    }

    #[test]
    fn another_author_does_not_sign_article() {
        let other = "/ndn/blog/author/100002/KEY/1/000001/1";
        assert_allowed("/ndn/blog/100001/post/2022/1", other, false);
    }

    #[test]
    fn article_needs_a_valid_year() {
        assert_allowed("/ndn/blog/100001/post/202/1", AUTHOR_KEY, false);
    }

    #[test]
    fn reader_does_not_sign_article() {
        let reader = "/ndn/blog/reader/200001/KEY/1/000001/1";
        assert_allowed("/ndn/blog/200001/post/2022/1", reader, false);
    }

    #[test]
    fn admin_signs_article() {
        assert_allowed("/ndn/blog/100001/post/2022/1", ADMIN_KEY, true);
    }
}
