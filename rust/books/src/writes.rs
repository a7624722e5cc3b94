//! Writes: fields of any kind, and the part that they are written into.

use reference::book::{length, user_length, LONGEST, MOST_USERS, USER_LENGTH};
use reference::transfer::Image;
use reference::version::{self, header_length, FIRST_HEADER_LENGTH, LONGEST_HEADER_LENGTH};

use crate::calls::Call;
use crate::damage::{counts, version_of, Damage};
use crate::generator::Generator;
use crate::versions::VERSIONS;

impl Generator {
    /// A write of fields that are accepted, or damaged, into a part of the
    /// right length, or of another.
    pub fn write(&mut self) -> Call {
        let bytes = self.few();
        let (users, trades) = counts(&bytes);
        let mut image = self.image(bytes, users, trades);
        if self.random().one_in(6) {
            // The same fields as those of another version.
            image[3] = self.random().pick(&VERSIONS).to_le_bytes()[0];
        }
        let right = length(version_of(&image), users, trades);
        if self.random().one_in(3) {
            self.damage_header(&mut image);
        }
        let (less, more) = (
            [right - 1, right - 8, right - 12],
            [right + 1, right + 8, right + 12],
        );
        let length = match self.random().below(8) {
            0 => self
                .random()
                .pick(&[0, 31, 32, 39, 40, LONGEST, LONGEST + 1]),
            1 => self.random().pick(&[less, more].concat()),
            _ => right,
        };
        Call::Write {
            image: Box::new(image),
            length,
        }
    }

    /// The image of these records, one of them perhaps damaged. Records past
    /// the counts are not always 0, and neither are S and U of version 1, the
    /// managers of versions 1 and 2 and the zero bytes; the mark may be another one.
    /// Writing looks at none of these.
    fn image(&mut self, bytes: Vec<u8>, users: usize, trades: usize) -> Image {
        let mut bytes = bytes;
        if self.random().one_in(2) {
            let damage = self.random().pick(&Damage::ALL);
            if damage.number() > 3 || damage == Damage::Mark {
                damage.apply(self.random(), &mut bytes, (users, trades));
            }
        }
        let version = version_of(&bytes);
        let (records, sales) = bytes.split_at(length(version, users, 0));
        let (header, records) = records.split_at(header_length(version));
        let mut image = [0; LONGEST];
        if self.random().one_in(2) {
            let tariffs = FIRST_HEADER_LENGTH..LONGEST_HEADER_LENGTH;
            image[tariffs].copy_from_slice(&self.tariffs());
        }
        image[..header.len()].copy_from_slice(header);
        let managers = self.random().one_in(2);
        for (place, record) in records.chunks_exact(user_length(version)).enumerate() {
            let at = length(version::LAST, place, 0);
            if managers {
                let any = self.random().word();
                let first = reference::book::u32_at(records, 0);
                let id: u32 = self.random().pick(&[0, first, any]);
                image[at + USER_LENGTH..][..4].copy_from_slice(&id.to_le_bytes());
            }
            image[at..][..record.len()].copy_from_slice(record);
        }
        image[length(version::LAST, MOST_USERS, 0)..][..sales.len()].copy_from_slice(sales);
        if users < MOST_USERS && self.random().one_in(3) {
            image[length(version::LAST, users, 0)] = 7;
            image[LONGEST - 1] = 7;
        }
        image
    }

    /// S and U in bytes, in range or not.
    fn tariffs(&mut self) -> [u8; 8] {
        let [s, u] = [(); 2].map(|()| {
            let any = self.random().word();
            let tariff: u32 = self
                .random()
                .pick(&[0, 1, 1_900, 99_999, 100_000, 100_001, any]);
            tariff.to_le_bytes()
        });
        let [a, b, c, d] = s;
        let [e, f, g, h] = u;
        [a, b, c, d, e, f, g, h]
    }

    fn damage_header(&mut self, image: &mut Image) {
        match self.random().below(4) {
            0 => image[3 + self.random().below(2)] = self.random().pick(&[0, 1, 2, 3, 4, 255]),
            1 => image[5] = self.random().pick(&[0, 65, 255]),
            2 => image[7] = self.random().pick(&[2, 255]),
            _ => image[6] = self.random().byte(),
        }
    }
}
